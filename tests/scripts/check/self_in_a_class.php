<?php
class C { function f() { return
self::A; } }
