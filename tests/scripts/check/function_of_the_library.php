<?php
function
StrLen() { }
