<?php

  $a	=
1 ;echo   $a ,( $a + 1 )*3 ;
