<?php if (1) echo 1;
echo 1.5;