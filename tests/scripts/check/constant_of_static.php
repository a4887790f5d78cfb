<?php
class C { const A =
static::B; }
