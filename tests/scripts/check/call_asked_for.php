<?php
echo isset(
f());
