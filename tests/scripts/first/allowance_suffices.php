<?php
$x=1;
echo $x;
echo 2;