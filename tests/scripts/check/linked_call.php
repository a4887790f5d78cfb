<?php
$a = &
f();
