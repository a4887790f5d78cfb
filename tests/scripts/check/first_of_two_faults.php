<?php
f() = 1;
break;