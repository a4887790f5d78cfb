<?php
const A =
$a;