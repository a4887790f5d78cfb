<?php
if ($a) { foreach ($b as $c) echo "$c", -1; }
function h() {}
