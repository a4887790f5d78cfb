<?php
list($b) =
$a;
