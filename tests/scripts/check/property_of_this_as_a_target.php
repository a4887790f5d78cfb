<?php
$a = 1;
$this->a = 1;
