<?php
echo 1;
final
class C {}