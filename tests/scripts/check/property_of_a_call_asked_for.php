<?php
echo isset(
f()->a);
