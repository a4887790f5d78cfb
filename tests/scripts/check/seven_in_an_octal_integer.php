<?php
echo 1;
echo 017;
