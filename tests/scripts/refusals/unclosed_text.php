<?php
echo 'a
b