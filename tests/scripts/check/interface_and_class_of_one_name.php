<?php
interface A { }
class
a { }
