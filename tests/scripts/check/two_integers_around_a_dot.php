<?php
echo 1 . 5;
