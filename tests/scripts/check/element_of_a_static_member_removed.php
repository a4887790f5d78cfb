<?php
unset(
C::$p[1]);
