<?php
class
Int { }
