<?php
echo <<<E
a
 E;
