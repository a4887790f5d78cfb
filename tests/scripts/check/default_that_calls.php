<?php
function f($a =
g()) { }
