<?php $a=2; $b=$a*3+4; echo $b,$c,$a-5;
