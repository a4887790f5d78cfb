<?php
echo 1
;