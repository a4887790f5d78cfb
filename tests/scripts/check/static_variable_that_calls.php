<?php
static $a =
1 + f();
