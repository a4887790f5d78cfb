<?php echo <<<E
a\tb
"c"
E;
echo 1;