<?php
const A =
B;
