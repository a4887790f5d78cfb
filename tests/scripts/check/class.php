<?php
function f() {}
abstract
class C {}
interface I {}
