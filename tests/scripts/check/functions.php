<?php
function f() { return 1; }
function g($a) { return f() . $a; }
echo g(2);
