<?php
$a =
list($b);
