<?php
[$a, ,
$b] = $c;
