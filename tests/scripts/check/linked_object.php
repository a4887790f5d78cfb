<?php
$a = &
new C;
