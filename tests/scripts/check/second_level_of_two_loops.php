<?php
while (1) while (1)
break 2;
