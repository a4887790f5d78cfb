<?php break;
echo 1 2;