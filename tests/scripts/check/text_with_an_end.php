<?php
echo 1;
echo 'a
';
