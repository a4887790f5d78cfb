<?php
function f($a,
$A) { }
