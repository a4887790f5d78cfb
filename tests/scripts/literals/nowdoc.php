<?php echo <<<'E'
$x\n
E;
