<?php
static $a =
1 + B;
