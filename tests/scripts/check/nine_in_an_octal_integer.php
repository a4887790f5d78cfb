<?php
echo 1;
echo 019;
