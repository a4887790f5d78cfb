<?php
$a = new
Statics;
