<?php
class C { public
var $a; }
