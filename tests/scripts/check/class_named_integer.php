<?php
class
Integer { }
