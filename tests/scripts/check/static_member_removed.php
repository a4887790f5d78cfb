<?php
unset(
C::$p);
