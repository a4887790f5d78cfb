<?php
$a = 1;
$this = 1;
