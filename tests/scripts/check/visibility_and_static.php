<?php
class C { public
static $a; }
