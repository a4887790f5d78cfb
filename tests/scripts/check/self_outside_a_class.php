<?php
function f() { return
self::A; }
