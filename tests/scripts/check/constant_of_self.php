<?php
class C { const A =
self::B; }
