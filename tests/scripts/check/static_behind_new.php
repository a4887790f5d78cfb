<?php
$a = new
static;
