<?php echo 1;
