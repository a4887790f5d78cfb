<?php
class A { }
function
a() { }
