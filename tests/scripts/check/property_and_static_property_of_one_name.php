<?php
class C {
public $a;
static $a; }
