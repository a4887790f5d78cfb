<?php
abstract class C { abstract function
f(); }
