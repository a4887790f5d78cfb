<?php
echo "a
\u{10FFFF}";
