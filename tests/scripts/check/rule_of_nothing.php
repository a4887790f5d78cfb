<?php
trait T { function f() { } }
class C { use T {
f as; } }
