<?php
switch (1) {
default:
case 1: }
