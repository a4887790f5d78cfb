<?php
class C {
const A = 1;
const a = 2; }
