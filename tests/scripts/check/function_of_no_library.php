<?php
function
StrLens() { }
