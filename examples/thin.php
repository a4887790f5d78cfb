<?php $a=2; $b=$a; echo $b,$c,7;
